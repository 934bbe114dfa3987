//! Lines about the check on large nets of one shape each, with faults at the first and the last of
//! their stations and links. The texts are data.

use super::net::{Net, MOST_LINKS, MOST_STATIONS};
use super::script::Script;

/// On one ring of all stations, whose link s leads from station s to the next.
const RING: &str = "\
start 0
check 0
work 1000
check 0
work 65535
check 0
check 1023
poke label 1023 2047
check 0
poke label 1023 2045
check 0
poke label 1023 2046
poke entry 1023 65534
check 0
poke entry 1023 1023
check 0
poke entry 1023 65535
check 0
poke entry 1022 65535
check 0
poke entry 1 65535
check 0
poke label 512 1
check 0
poke entry 1 0
poke entry 1022 1021
check 0
poke label 512 1024
check 0
poke entry 1023 1022
check 0
check 1024
poke entry 0 1023
check 0
regrade 1023 0
check 0
poke label 0 2046
check 0
check 1
poke entry 1 65534
poke label 1 0
check 1
start 1
work 65535
check 1
check 0
poke label 0 2045
check 1
poke label 0 2046
check 1
poke grade 1022 1
check 1
poke grade 1022 2
poke grade 1023 1
check 1
regrade 0 0
check 1
start 512
work 65535
check 512
check 511
poke entry 511 65535
check 512
poke entry 511 65534
check 512
";

/// Station 0 leads to station 1, and the others are a ring. Link 2s - 1 leads from station s to the
/// next, and link 2s to itself.
const RING_APART: &str = "\
start 0
work 65535
check 0
poke entry 1 2045
check 0
poke entry 0 2045
check 0
poke entry 0 65534
poke entry 1 0
check 0
poke entry 1023 2046
check 0
poke entry 1022 2044
check 0
poke entry 1023 2043
check 0
poke entry 512 1024
check 0
poke entry 1022 2041
check 0
poke entry 1 2
check 0
poke entry 512 1021
check 0
poke entry 1 0
check 0
poke entry 1023 65535
check 0
poke entry 1 2045
check 0
poke entry 1 0
poke entry 1022 65535
check 0
poke entry 2 65535
check 0
poke entry 2 1
poke entry 1022 2041
poke entry 1023 2043
check 0
poke label 1 1
check 0
poke label 1 0
poke grade 2043 1
check 0
poke entry 1023 2046
check 0
poke label 1023 1
check 0
poke entry 1023 2043
check 0
poke grade 2043 0
check 0
";

impl Script {
    /// Long walks, rings of nearly all stations, and as many links as can be between few stations.
    pub fn large_check_shapes(&mut self) {
        self.text("\n# A ring of all stations, checked.\n");
        let links = (0..MOST_STATIONS).map(|tail| (tail, (tail + 1) % MOST_STATIONS, 2));
        let (net, grades) = Net::of(MOST_STATIONS, links.collect());
        self.line(&net.words());
        self.grade_line(&grades);
        self.text(RING);
        self.text("\n# A ring of all stations but the gateway.\n");
        let mut links = vec![(0, 1, 0)];
        for station in 1..MOST_STATIONS {
            links.push((station, station % (MOST_STATIONS - 1) + 1, 0));
            links.push((station, station, 0));
        }
        let (net, grades) = Net::of(MOST_STATIONS, links);
        self.line(&net.words());
        self.grade_line(&grades);
        self.text(RING_APART);
        self.text("\n# The highest station leads to all others, and they lead nowhere.\n");
        let links = (0..MOST_STATIONS - 1).map(|head| (MOST_STATIONS - 1, head, 1));
        let (net, grades) = Net::of(MOST_STATIONS, links.collect());
        self.line(&net.words());
        self.grade_line(&grades);
        self.text("start 1023\ncheck 1023\nwork 1\ncheck 1023\ncheck 1022\n");
        for station in [1022, 1021, 256, 255, 1, 0] {
            self.words(&format!("poke entry {station} 65535"));
            self.check(1023);
        }
        for station in [1022, 1021, 256, 255, 1, 0] {
            self.words(&format!("poke entry {station} 65534"));
            self.check(1023);
        }
        self.text(
            "\n# All links are parallel, or lead from one station to itself.\nnet 0 4096 4096 /",
        );
        self.many(&[(MOST_LINKS, 1)]);
        self.text("\ngrades");
        self.many(&[(MOST_LINKS, 3)]);
        self.text("\nstart 0\ncheck 0\nwork 9\ncheck 0\nentries\n");
        for entry in [4095, 4096, 2048, 0] {
            self.write_entry(1, entry);
            self.check(0);
        }
        self.text(
            "poke grade 4095 2\ncheck 0\npoke grade 2048 2\ncheck 0\npoke entry 1 4095\ncheck 0\n",
        );
        self.text(
            "poke label 1 2\ncheck 0\npoke entry 1 0\ncheck 0\npoke entry 1 65535\ncheck 0\n",
        );
        self.text("net 0 4096 /");
        self.many(&[(MOST_LINKS, 0)]);
        self.text("\ncheck 0\nstart 0\ncheck 0\nwork 9\ncheck 0\npoke entry 0 4095\ncheck 0\n");
        self.text("\n# No link at all.\n");
        self.even_net(&[(MOST_STATIONS + 1, 0)], &[]);
        self.text("check 0\ncheck 1023\ncheck 1024\nstart 1023\ncheck 1023\ncheck 0\n");
        self.text("poke entry 0 65534\ncheck 1023\ncheck 0\npoke entry 1023 65535\ncheck 0\n");
        self.text("poke entry 1023 0\ncheck 0\npoke entry 512 4095\ncheck 0\n");
    }
}
