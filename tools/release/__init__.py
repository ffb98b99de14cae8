"""What users take: a tarball and a package for Debian, made the same byte for byte from one tree and one built program,
and tried in an empty root. `make dist` and `make deb` call it.
"""
