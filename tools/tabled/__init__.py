"""What tools/tables.py is made of: the table, its renderings, and what the Rattle sources say."""
