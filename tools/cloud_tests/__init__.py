"""What tools/log_from and tools/cloud_from are to make of files: tools/test_clouds.py runs it."""
