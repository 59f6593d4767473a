"""Writers of metafiles: fields, records and whole files of both formats, [MS-WMF] and [MS-EMF]."""
