"""The tables as pages: read-only, on the loopback interface, without script."""
