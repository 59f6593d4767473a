"""Files and certificates that are made to break a reader: from good ones by changes at random, each by its number and a seed."""
