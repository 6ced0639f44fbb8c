"""What the tools of this folder share: the script language, the report, the rules of the heap, and pictures."""
