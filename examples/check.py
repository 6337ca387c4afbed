"""Says whether a volume is well formed and, if it isn't, what to try next: check.py VOLUME"""
import sys

import luks

with luks.Volume(sys.argv[1]) as volume:
    try:
        report = volume.check()
        print(f"accepted luks{report.version} areas {report.areas}")
    except luks.Fault as fault:
        sys.exit(f"refused {fault.name}\nmeans  {fault.meaning}\nnext   {fault.next}")
