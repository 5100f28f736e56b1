"""The tests of scripts/from-cedar and scripts/to-cedar; scripts/dev/test-from-cedar runs them."""
