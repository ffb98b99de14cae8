import ctypes
import os
import time

os.setgroups([])
os.setresgid(33, 33, 33)
os.setresuid(33, 33, 33)
ctypes.CDLL(None).prctl(38, 1, 0, 0, 0)     # PR_SET_NO_NEW_PRIVS
time.sleep(60)
