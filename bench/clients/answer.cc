// answer PORT
//
// A gRPC server at 127.0.0.1:PORT, over gRPC's C++ library, that answers each unary call at once with an empty message:
// what a call costs where the server has nothing to do. A thread for each processor, until it is ended by a signal.

#include <algorithm>
#include <cstdlib>
#include <iostream>
#include <memory>
#include <string>
#include <thread>
#include <vector>

#include <grpcpp/generic/async_generic_service.h>
#include <grpcpp/grpcpp.h>

using grpc::ByteBuffer;
using grpc::ServerCompletionQueue;

// One call: asked for, read, answered.
class Call {
 public:
  Call(grpc::AsyncGenericService* service, ServerCompletionQueue* queue)
      : service_(service), queue_(queue), stream_(&context_) {
    service_->RequestCall(&context_, &stream_, queue_, queue_, this);
  }

  // Goes on behind a step that was done; false where this call has ended.
  bool GoOn(bool done) {
    if (!done) return false;
    switch (step_++) {
      case 0:
        new Call(service_, queue_);
        stream_.Read(&request_, this);
        return true;
      case 1:
        stream_.WriteAndFinish(Empty(), grpc::WriteOptions(), grpc::Status::OK, this);
        return true;
      default:
        return false;
    }
  }

 private:
  static ByteBuffer Empty() {
    grpc::Slice nothing;
    return ByteBuffer(&nothing, 1);
  }

  grpc::AsyncGenericService* service_;
  ServerCompletionQueue* queue_;
  grpc::GenericServerContext context_;
  grpc::GenericServerAsyncReaderWriter stream_;
  ByteBuffer request_;
  int step_ = 0;
};

void Serve(grpc::AsyncGenericService* service, ServerCompletionQueue* queue) {
  new Call(service, queue);
  void* tag;
  bool done;
  while (queue->Next(&tag, &done)) {
    auto* call = static_cast<Call*>(tag);
    if (!call->GoOn(done)) delete call;
  }
}

int main(int count, char** words) {
  if (count != 2) {
    std::cerr << "answer: write: answer PORT" << std::endl;
    return 1;
  }
  grpc::AsyncGenericService service;
  grpc::ServerBuilder builder;
  builder.SetMaxReceiveMessageSize(-1);
  builder.AddListeningPort("127.0.0.1:" + std::string(words[1]), grpc::InsecureServerCredentials());
  builder.RegisterAsyncGenericService(&service);
  std::vector<std::unique_ptr<ServerCompletionQueue>> queues;
  for (unsigned at = 0; at < std::max(std::thread::hardware_concurrency(), 1u); ++at) {
    queues.push_back(builder.AddCompletionQueue());
  }
  auto server = builder.BuildAndStart();
  if (!server) return 1;
  std::vector<std::thread> threads;
  for (auto& queue : queues) threads.emplace_back(Serve, &service, queue.get());
  for (auto& thread : threads) thread.join();
}
