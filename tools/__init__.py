"""Tools that stand beside the proved program. Nothing in here is proved."""
