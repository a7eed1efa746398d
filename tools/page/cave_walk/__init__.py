"""What makes pages and charts of walks, for `page`, `chart` and `live`."""
