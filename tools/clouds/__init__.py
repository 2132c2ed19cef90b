"""Files of point clouds, read into the commands of a log and written from what a map holds."""
