"""What the tools around `hls_origin` share: a client of the origin, and readers of boxes, playlists, certificates and channel files."""
