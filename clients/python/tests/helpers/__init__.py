"""What the tests of the client, and of what stands in front of a server, share."""
