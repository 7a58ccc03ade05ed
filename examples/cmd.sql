SELECT * FROM "events" WHERE "Image" = 'cmd.exe' COLLATE NOCASE
