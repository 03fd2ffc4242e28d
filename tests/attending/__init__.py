"""A board that `dgt_replay live` attends: a host in miniature, boards that answer it, and what is compared."""
