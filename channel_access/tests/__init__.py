"""Tests of the front; tools/check-front runs them."""
