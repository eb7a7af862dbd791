"""The table tool, `./veltzuma`: reads tables from files, asks the library about them, and shows what it answers. Nothing here works out a value or
a slope: both are the library's."""
