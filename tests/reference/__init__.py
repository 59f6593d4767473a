"""The player once more, slow and plain: each pixel of the surface is decided by itself."""
