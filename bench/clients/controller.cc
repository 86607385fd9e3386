// controller PORT CONFIG [WRITES [ANSWER]]
//
// A controller over gRPC's C++ library, at a switch that serves at 127.0.0.1:PORT: capabilities, arbitration, the
// program of the file CONFIG, which bin/p4config made of the router of examples/programs, an entry, its counter,
// WRITES Writes (default 10,000), one at a time and then 16, a packet out and in, and a backup that is told of its
// primary's leaving. The calls are named at a generic stub, and their messages are those of tools/p4tools/protos. The
// same Writes are made at the server of answer.cc, where one listens at port ANSWER. It prints a line for each step and
// ends with status 1 at the first difference.

#include <chrono>
#include <cstdint>
#include <cstdlib>
#include <fstream>
#include <iomanip>
#include <iostream>
#include <iterator>
#include <memory>
#include <string>
#include <vector>

#include <google/protobuf/util/message_differencer.h>
#include <grpcpp/generic/generic_stub.h>
#include <grpcpp/grpcpp.h>
#include <grpcpp/impl/codegen/proto_utils.h>

#include "p4runtime.pb.h"

using google::protobuf::util::MessageDifferencer;
using grpc::ClientContext;
using grpc::CompletionQueue;
using grpc::StatusCode;

constexpr uint64_t kDevice = 1;
// In microseconds: above the election ids of all clients that were started before.
const uint64_t kElection = std::chrono::duration_cast<std::chrono::microseconds>(
                               std::chrono::system_clock::now().time_since_epoch()).count();
constexpr uint32_t kIpv4Lpm = 0x02000002;
constexpr uint32_t kRoute = 0x01000003;
constexpr int kCpuPort = 255;
constexpr int kInFlight = 16;
const std::string kService = "/p4.v1.P4Runtime/";

// Ends the program unless a step went as it should.
void Expect(bool held, const std::string& what) {
  if (held) return;
  std::cerr << "controller: " << what << std::endl;
  std::exit(1);
}

// Waits for the one thing that is under way; false where it came to nothing.
bool Next(CompletionQueue& queue) {
  void* tag;
  bool done = false;
  Expect(queue.Next(&tag, &done), "the queue has ended");
  return done;
}

std::string FileOf(const std::string& name) {
  std::ifstream file(name, std::ios::binary);
  return {std::istreambuf_iterator<char>(file), std::istreambuf_iterator<char>()};
}

// Over TLS where CERTIFICATES is set, the folder of client.pem, client.key and of the certificate ca.pem of who made the
// server's.
std::shared_ptr<grpc::ChannelCredentials> Credentials() {
  const char* folder = std::getenv("CERTIFICATES");
  if (!folder) return grpc::InsecureChannelCredentials();
  const std::string path = std::string(folder) + "/";
  grpc::SslCredentialsOptions options;
  options.pem_root_certs = FileOf(path + "ca.pem");
  options.pem_private_key = FileOf(path + "client.key");
  options.pem_cert_chain = FileOf(path + "client.pem");
  return grpc::SslCredentials(options);
}

std::shared_ptr<grpc::Channel> ChannelTo(const std::string& port) {
  grpc::ChannelArguments arguments;
  arguments.SetInt(GRPC_ARG_MAX_METADATA_SIZE, 1 << 20);
  // A connection for each channel: by default those to one address share one.
  arguments.SetInt(GRPC_ARG_USE_LOCAL_SUBCHANNEL_POOL, 1);
  return grpc::CreateCustomChannel("127.0.0.1:" + port, Credentials(), arguments);
}

// One unary call under way, or done.
template <class Request, class Response>
struct UnaryCall {
  ClientContext context;
  Response response;
  grpc::Status status;
  std::unique_ptr<grpc::ClientAsyncResponseReader<Response>> reader;

  UnaryCall(const std::shared_ptr<grpc::Channel>& channel, const std::string& method, const Request& request,
            CompletionQueue& queue) {
    grpc::TemplatedGenericStub<Request, Response> stub(channel);
    reader = stub.PrepareUnaryCall(&context, kService + method, request, &queue);
    reader->StartCall();
    reader->Finish(&response, &status, this);
  }
};

// Makes a unary call, and waits for its answer.
template <class Response, class Request>
grpc::Status Call(const std::shared_ptr<grpc::Channel>& channel, const std::string& method, const Request& request,
                  Response* response) {
  CompletionQueue queue;
  UnaryCall<Request, Response> call(channel, method, request, queue);
  Expect(Next(queue), method + " had no answer");
  *response = call.response;
  return call.status;
}

// What a Read selects.
std::vector<p4::v1::Entity> Read(const std::shared_ptr<grpc::Channel>& channel, const p4::v1::ReadRequest& request) {
  CompletionQueue queue;
  ClientContext context;
  grpc::TemplatedGenericStub<p4::v1::ReadRequest, p4::v1::ReadResponse> stub(channel);
  auto call = stub.PrepareCall(&context, kService + "Read", &queue);
  call->StartCall(nullptr);
  Expect(Next(queue), "Read did not begin");
  call->WriteLast(request, grpc::WriteOptions(), nullptr);
  Expect(Next(queue), "Read was not sent");
  std::vector<p4::v1::Entity> found;
  p4::v1::ReadResponse response;
  for (call->Read(&response, nullptr); Next(queue); call->Read(&response, nullptr)) {
    found.insert(found.end(), response.entities().begin(), response.entities().end());
  }
  grpc::Status status;
  call->Finish(&status, nullptr);
  Next(queue);
  Expect(status.ok(), "Read was refused: " + status.error_message());
  return found;
}

// The stream channel.
class Stream {
 public:
  explicit Stream(const std::shared_ptr<grpc::Channel>& channel) : stub_(channel) {
    call_ = stub_.PrepareCall(&context_, kService + "StreamChannel", &queue_);
    call_->StartCall(nullptr);
    Expect(Next(queue_), "the stream did not begin");
  }

  // Sends a message, and waits for the next one.
  p4::v1::StreamMessageResponse Ask(const p4::v1::StreamMessageRequest& request) {
    call_->Write(request, nullptr);
    Expect(Next(queue_), "a message of the stream was not sent");
    return Hear();
  }

  // Waits for the next message.
  p4::v1::StreamMessageResponse Hear() {
    p4::v1::StreamMessageResponse response;
    call_->Read(&response, nullptr);
    Expect(Next(queue_), "no message came on the stream");
    return response;
  }

  // Asks for an election id.
  p4::v1::MasterArbitrationUpdate Arbitrate(uint64_t election) {
    p4::v1::StreamMessageRequest request;
    request.mutable_arbitration()->set_device_id(kDevice);
    request.mutable_arbitration()->mutable_election_id()->set_low(election);
    return Ask(request).arbitration();
  }

  // Ends the stream, and waits for its end.
  grpc::Status End() {
    grpc::Status status;
    call_->WritesDone(nullptr);
    Expect(Next(queue_), "the stream's end was not sent");
    call_->Finish(&status, nullptr);
    Next(queue_);
    return status;
  }

 private:
  grpc::TemplatedGenericStub<p4::v1::StreamMessageRequest, p4::v1::StreamMessageResponse> stub_;
  ClientContext context_;
  CompletionQueue queue_;
  std::unique_ptr<grpc::ClientAsyncReaderWriter<p4::v1::StreamMessageRequest, p4::v1::StreamMessageResponse>> call_;
};

// What was told of the primary: the role's greatest election id, and a code.
void ExpectArbitration(const p4::v1::MasterArbitrationUpdate& told, StatusCode code, const std::string& who) {
  Expect(told.device_id() == kDevice && told.election_id().high() == 0 && told.election_id().low() == kElection,
         who + " was told of another election id: " + told.ShortDebugString());
  Expect(told.has_status() && told.status().code() == code, who + " was told: " + told.ShortDebugString());
}

// The entry of 10.SECOND.0.0/16: its packets leave at a port, to an address that ends so.
p4::v1::TableEntry Route(int port, int address, char second = 1) {
  p4::v1::TableEntry entry;
  entry.set_table_id(kIpv4Lpm);
  auto* match = entry.add_match();
  match->set_field_id(1);
  match->mutable_lpm()->set_value(std::string{10, second, 0, 0});
  match->mutable_lpm()->set_prefix_len(16);
  auto* action = entry.mutable_action()->mutable_action();
  action->set_action_id(kRoute);
  auto* param = action->add_params();
  param->set_param_id(1);
  param->set_value(std::string(1, static_cast<char>(port)));
  param = action->add_params();
  param->set_param_id(2);
  param->set_value(std::string{2, 0, 0, static_cast<char>(address >> 16), static_cast<char>(address >> 8),
                               static_cast<char>(address)});
  return entry;
}

p4::v1::WriteRequest Write(p4::v1::Update::Type type, const p4::v1::TableEntry& entry) {
  p4::v1::WriteRequest request;
  request.set_device_id(kDevice);
  request.mutable_election_id()->set_low(kElection);
  auto* update = request.add_updates();
  update->set_type(type);
  *update->mutable_entity()->mutable_table_entry() = entry;
  return request;
}

void ExpectRefusal(const grpc::Status& status) {
  Expect(status.error_code() == StatusCode::UNKNOWN, "the same INSERT again was not refused with UNKNOWN");
  google::rpc::Status details;
  p4::v1::Error error;
  Expect(details.ParseFromString(status.error_details()) && details.details_size() == 1, "it has no details");
  Expect(error.ParseFromString(details.details(0).value()), "its detail is no p4.v1.Error");
  Expect(error.canonical_code() == StatusCode::ALREADY_EXISTS, "its update was not refused with ALREADY_EXISTS");
}

// The route and its counter, as a Read has them.
void ExpectEntry(const std::shared_ptr<grpc::Channel>& channel, const p4::v1::TableEntry& wanted) {
  p4::v1::ReadRequest request;
  request.set_device_id(kDevice);
  request.add_entities()->mutable_table_entry()->set_table_id(kIpv4Lpm);
  request.add_entities()->mutable_direct_counter_entry()->mutable_table_entry()->set_table_id(kIpv4Lpm);
  auto found = Read(channel, request);
  Expect(found.size() == 2, "a Read did not find one entry and one counter");
  Expect(MessageDifferencer::Equals(found[0].table_entry(), wanted), "the entry is " + found[0].ShortDebugString());
  Expect(found[1].direct_counter_entry().data().packet_count() == 0, "the counter is not 0");
}

// So many Writes a second, of which some are under way at a time.
double WritesASecond(const std::shared_ptr<grpc::Channel>& channel, int count, int in_flight) {
  using OneWrite = UnaryCall<p4::v1::WriteRequest, p4::v1::WriteResponse>;
  CompletionQueue queue;
  auto begun = std::chrono::steady_clock::now();
  auto start = [&](int number) {
    new OneWrite(channel, "Write", Write(p4::v1::Update::MODIFY, Route(1 + number % 8, number)), queue);
  };
  int started = 0;
  while (started < count && started < in_flight) start(started++);
  for (int done = 0; done < count; ++done) {
    void* tag;
    bool answered = false;
    Expect(queue.Next(&tag, &answered) && answered, "a Write had no answer");
    std::unique_ptr<OneWrite> call(static_cast<OneWrite*>(tag));
    Expect(call->status.ok(), "a Write was refused: " + call->status.error_message());
    if (started < count) start(started++);
  }
  return count / std::chrono::duration<double>(std::chrono::steady_clock::now() - begun).count();
}

// The same at the switch and at a server that answers at once, if there is one.
void TimeWrites(const std::shared_ptr<grpc::Channel>& channel, const std::shared_ptr<grpc::Channel>& answer, int count,
                int in_flight) {
  double ours = WritesASecond(channel, count, in_flight);
  std::cout << count << " Writes on one channel, " << in_flight << " at a time: " << static_cast<long>(ours)
            << " a second";
  if (answer) {
    double others = WritesASecond(answer, count, in_flight);
    std::cout << ", " << std::fixed << std::setprecision(2) << ours / others << " times the "
              << static_cast<long>(others) << " a second of a server that answers at once";
  }
  std::cout << std::endl;
}

// The bytes of hex digits.
std::string Bytes(const std::string& digits) {
  std::string bytes;
  for (size_t at = 0; at < digits.size(); at += 2) {
    bytes += static_cast<char>(std::stoi(digits.substr(at, 2), nullptr, 16));
  }
  return bytes;
}

// A packet out whose route leads to the controller comes back with the route's address, one hop less and its checksum.
void ExpectPacketBack(const std::shared_ptr<grpc::Channel>& channel, Stream& stream) {
  p4::v1::WriteResponse written;
  auto insert = Write(p4::v1::Update::INSERT, Route(kCpuPort, 7, 2));
  Expect(Call(channel, "Write", insert, &written).ok(), "the route to the controller was refused");
  p4::v1::StreamMessageRequest request;
  request.mutable_packet()->set_payload(
      Bytes("02000000000a020000000001" "0800" "4500001e00004000400126d4" "0a0000010a020009" "746f20616e642066726f"));
  auto told = stream.Ask(request);
  auto wanted =
      Bytes("02000000000702000000000a" "0800" "4500001e000040003f0127d4" "0a0000010a020009" "746f20616e642066726f");
  Expect(told.has_packet() && told.packet().payload() == wanted, "what came back is " + told.ShortDebugString());
  p4::v1::ReadRequest counter;
  counter.set_device_id(kDevice);
  auto* entry = counter.add_entities()->mutable_direct_counter_entry()->mutable_table_entry();
  entry->set_table_id(kIpv4Lpm);
  *entry->mutable_match() = Route(kCpuPort, 7, 2).match();
  auto found = Read(channel, counter);
  Expect(found.size() == 1, "its counter was not found");
  auto data = found[0].direct_counter_entry().data();
  Expect(data.packet_count() == 1 && data.byte_count() == static_cast<int64_t>(request.packet().payload().size()),
         "its counter is " + data.ShortDebugString());
}

int main(int count, char** words) {
  Expect(3 <= count && count <= 5, "write: controller PORT CONFIG [WRITES [ANSWER]]");
  auto channel = ChannelTo(words[1]);
  int writes = count > 3 ? std::atoi(words[3]) : 10'000;

  p4::v1::CapabilitiesResponse told;
  Expect(Call(channel, "Capabilities", p4::v1::CapabilitiesRequest(), &told).ok(), "Capabilities was refused");
  Expect(told.p4runtime_api_version() == "1.3.0", "the version is " + told.p4runtime_api_version());
  std::cout << "capabilities: 1.3.0" << std::endl;

  Stream stream(channel);
  ExpectArbitration(stream.Arbitrate(kElection), StatusCode::OK, "the primary");
  std::cout << "arbitration: primary" << std::endl;

  p4::v1::SetForwardingPipelineConfigRequest program;
  p4::v1::SetForwardingPipelineConfigResponse set;
  program.set_device_id(kDevice);
  program.mutable_election_id()->set_low(kElection);
  program.set_action(p4::v1::SetForwardingPipelineConfigRequest::VERIFY_AND_COMMIT);
  std::string bytes = FileOf(words[2]);
  Expect(!bytes.empty() && program.mutable_config()->ParseFromString(bytes), "the configuration is not read");
  Expect(Call(channel, "SetForwardingPipelineConfig", program, &set).ok(), "the program was refused");
  std::cout << "program: committed" << std::endl;

  p4::v1::WriteResponse written;
  auto insert = Write(p4::v1::Update::INSERT, Route(3, 3));
  Expect(Call(channel, "Write", insert, &written).ok(), "the INSERT was refused");
  ExpectRefusal(Call(channel, "Write", insert, &written));
  std::cout << "insert: done, and the same again UNKNOWN, its update ALREADY_EXISTS" << std::endl;
  ExpectEntry(channel, Route(3, 3));
  std::cout << "read: the entry, and a counter of 0" << std::endl;

  auto answer = count > 4 ? ChannelTo(words[4]) : nullptr;
  TimeWrites(channel, answer, writes, 1);
  ExpectEntry(channel, Route(1 + (writes - 1) % 8, writes - 1));
  TimeWrites(channel, answer, writes, kInFlight);

  ExpectPacketBack(channel, stream);
  std::cout << "packet out and in: came back, and was counted" << std::endl;

  Stream backup(ChannelTo(words[1]));
  ExpectArbitration(backup.Arbitrate(kElection - 1), StatusCode::ALREADY_EXISTS, "the backup");
  Expect(stream.End().ok(), "the primary's stream did not end with OK");
  ExpectArbitration(backup.Hear().arbitration(), StatusCode::NOT_FOUND, "the backup");
  std::cout << "backup: told that its primary left" << std::endl;
  Expect(backup.End().ok(), "the stream did not end with OK");
  std::cout << "end of the stream: OK" << std::endl;
}
