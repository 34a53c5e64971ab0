"""A ledger on several machines, and many tenants of one listener."""
