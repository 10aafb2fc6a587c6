client A { startRead(); endRead(); startRead(); endRead(); }
client B { startRead(); endRead(); }
client W { ask(); startWrite(); endWrite(); }
