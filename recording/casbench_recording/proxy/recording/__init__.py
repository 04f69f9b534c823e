"""What is recorded for a request and its answer: calls, replies, and the end of a recording that can't go
on."""
