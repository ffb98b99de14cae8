import os
import time

os.setgroups([])
os.setresgid(33, 33, 33)
os.setresuid(33, 33, -1)
time.sleep(60)
