client A { arrive(); leave(); }
client B { arrive(); leave(); }
client C { arrive(); leave(); }
