"""What tools/front is made of: connections of stations, the MME, the log, and whoever asks. Nothing here is part of a proof."""
