"""Rounds of boards played against bin/dgt_round, and its pure tables; tests/round plays them."""
