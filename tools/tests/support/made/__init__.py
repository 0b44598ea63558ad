"""What tests are made of: indexes, locks, journals, sessions and archives."""
