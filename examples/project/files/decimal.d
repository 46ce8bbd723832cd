decimal.o: decimal.s calls.mac widths.mac
