"""What bin/picture makes its pages of."""
