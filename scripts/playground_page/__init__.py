"""The page of scripts/playground: its server on this machine, and what that answers. Nothing of it is proved."""
