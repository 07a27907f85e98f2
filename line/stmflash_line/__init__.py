"""What stmflash-line is made of: a serial port, a socket, and bytes both ways between them."""
