"""What the tests share: histories, tables, pages, stand-ins for programs."""
