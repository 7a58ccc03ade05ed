SELECT * FROM "events" WHERE "BytesSent" >= 104857600 AND "DestinationPort" > 1023 AND NOT ("DestinationIp" IS NOT NULL AND "DestinationIp" LIKE '10.%' ESCAPE '\')
