"""What bin/p4tape and bin/p4config are made of: messages of P4Runtime 1.3.0, tapes, reports, scenarios."""
