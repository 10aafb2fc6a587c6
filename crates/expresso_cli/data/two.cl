client A { put(); put(); }
client B { get(); get(); }
