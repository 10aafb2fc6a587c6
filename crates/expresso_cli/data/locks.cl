client A { acquire(); release(); }
client B { acquire(); release(); }
