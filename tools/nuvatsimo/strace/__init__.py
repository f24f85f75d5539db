"""Lock scripts and histories of clients, from recordings of system calls by strace."""
