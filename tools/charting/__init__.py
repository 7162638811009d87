"""What tools/chart is made of: whom each message is of, rows, lanes, and how both are drawn. Nothing here is part of a proof."""
