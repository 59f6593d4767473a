"""What [MS-WMF] and [MS-EMF] say of each kind of record, read anew for the tests alone."""
