client A { acquire(); release(); }
client B { try acquire(); try acquire(); release(); }
