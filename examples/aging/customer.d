108 "Hoover Pumps"
115 "Alder & Sons"
121 "Zenith Marine"
130 "Brandt GmbH"
