"""What comes with the proved program: the tools `./look` and `./cabinet`, the launcher, and what they share. Nothing of
it is proved."""
