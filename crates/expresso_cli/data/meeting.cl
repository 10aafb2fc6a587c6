client A { meet(); meet(); }
client B { meet(); }
client C { meet(); }
