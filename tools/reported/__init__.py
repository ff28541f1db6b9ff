"""What the lines of a log come to (tools/report): how a line is read, what is counted, and how it is told."""
