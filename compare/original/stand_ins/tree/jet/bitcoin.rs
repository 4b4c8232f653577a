// Stands in for the Bitcoin jets. What can't be seen: all of them; no book calls one.
