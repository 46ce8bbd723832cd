about.o: about.s calls.mac tools.mac
