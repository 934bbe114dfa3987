//! The check: whether labels and entries are a tree of best paths from a gateway. It goes by net,
//! grades, labels and entries alone, whoever wrote them, and writes nothing.

use crate::entries::{self, OWN};
use crate::faults::Refusal;
use crate::guards::refusal;
use crate::site::Site;

impl Site {
    /// Tells the first fault. All that it refuses has its own layer, the sizes too.
    pub fn check(&self, gateway: usize) -> Result<(), Refusal> {
        self.test(gateway).map_err(|refusal| Refusal {
            layer: "check",
            ..refusal
        })
    }

    /// Each test is made of all stations, or of all links, before the next begins.
    fn test(&self, gateway: usize) -> Result<(), Refusal> {
        self.needs_grades()?;
        self.needs_labels_and_entries()?;
        self.needs_station(gateway)?;
        if self.labels[gateway] != self.kind.start() || self.entries[gateway] != OWN {
            return Err(refusal(16, 0));
        }
        for station in self.labelled_stations() {
            if station != gateway && !self.is_entered(station) {
                return Err(refusal(17, station));
            }
        }
        for station in self.labelled_stations() {
            if !self.leads_back(station, gateway) {
                return Err(refusal(18, station));
            }
        }
        // The links of a lower station have the lower numbers.
        for tail in self.labelled_stations() {
            for link in self.net.links_of(tail) {
                if self.improves(tail, link) {
                    return Err(refusal(19, link));
                }
            }
        }
        Ok(())
    }

    fn labelled_stations(&self) -> impl Iterator<Item = usize> + '_ {
        (0..self.net.stations()).filter(|&station| entries::labelled(&self.entries, station))
    }

    /// Whether the entry is a link into the station that brings the label which stands there.
    fn is_entered(&self, station: usize) -> bool {
        let link = self.entries[station];
        match self.net.ends(link) {
            Some((tail, head)) => {
                head == station
                    && entries::labelled(&self.entries, tail)
                    && self.labels[station] == self.kind.carry(self.labels[tail], self.grades[link])
            }
            None => false,
        }
    }

    /// Whether the walk back from the station comes to the gateway.
    fn leads_back(&self, station: usize, gateway: usize) -> bool {
        station == gateway
            || entries::walk(&self.net, &self.entries, station).any(|(_, tail)| tail == gateway)
    }

    /// Whether a link of a labelled tail brings its head a label, or a better one.
    fn improves(&self, tail: usize, link: usize) -> bool {
        let head = self.net.head(link);
        let carried = self.kind.carry(self.labels[tail], self.grades[link]);
        !entries::labelled(&self.entries, head) || self.kind.better(carried, self.labels[head])
    }
}

#[cfg(test)]
mod tests {
    use crate::tests::check_from;

    /// Links: 0 from 0 to 1, 1 from 0 to 2, 2 from 1 to 3, 3 from 2 to 1, 4 from 2 to 3.
    const ESTATE: &str = "net 0 2 3 5 5 / 1 2 3 1 3\ngrades 4 1 1 2 5\n";
    /// The same, worked from station 0: labels 0 3 1 4, entries 65534 3 1 2.
    const AT_REST: &str = "net 0 2 3 5 5 / 1 2 3 1 3\ngrades 4 1 1 2 5\nstart 0\nwork 10\n";

    /// What is checked from gateway 0 after some pokes, each `label` or `entry`, index and value.
    fn poked(opening: &str, pokes: &[&str], answer: &str) {
        let mut opening = opening.to_string();
        for poke in pokes {
            opening += &format!("poke {poke}\n");
        }
        check_from(&opening, "check 0", &[answer]);
    }

    fn refused(number: u8, place: usize) -> String {
        format!("refused {number} place {place} layer check")
    }

    #[test]
    fn plans_at_rest_are_accepted() {
        poked(AT_REST, &[], "check ok");
        poked("net 0 0 /\nstart 0\n", &[], "check ok");
        poked("net 0 1 2 2 / 1 0\nstart 0\nwork 9\n", &[], "check ok");
        poked("net 0 1 1 / 0\nstart 0\n", &[], "check ok");
    }

    #[test]
    fn the_worked_rows() {
        poked(AT_REST, &["label 3 5"], &refused(17, 3));
        let pokes = ["label 1 4", "label 3 5", "entry 1 0"];
        poked(AT_REST, &pokes, &refused(19, 3));
        let ring = "net 0 0 1 2 / 2 1\n";
        let pokes = [
            "label 1 5",
            "label 2 5",
            "entry 0 65534",
            "entry 1 1",
            "entry 2 0",
        ];
        poked(ring, &pokes, &refused(18, 1));
    }

    #[test]
    fn sizes_and_gateway_come_first() {
        for (memory, number) in [
            ("resize grades 4\nresize labels 3\n", 5),
            ("resize grades 6\nresize entries 5\n", 5),
            ("resize labels 3\n", 6),
            ("resize entries 5\n", 6),
            ("", 7),
        ] {
            let opening = format!("{ESTATE}{memory}");
            check_from(&opening, "check 4", &[&refused(number, 0)]);
            let opening = format!("{AT_REST}{memory}poke label 0 9\n");
            check_from(&opening, "check 65535", &[&refused(number, 0)]);
        }
    }

    #[test]
    fn the_gateway_has_the_start_label_and_its_own_entry() {
        poked(ESTATE, &[], &refused(16, 0));
        poked(AT_REST, &["label 0 1"], &refused(16, 0));
        for entry in ["65535", "65533", "0", "5"] {
            let poke = format!("entry 0 {entry}");
            poked(AT_REST, &[&poke, "entry 3 0"], &refused(16, 0));
        }
        let refused = refused(16, 0);
        check_from(AT_REST, "check 2\ncheck 3", &[&refused, &refused]);
    }

    #[test]
    fn an_entry_brings_its_label_from_a_labelled_tail() {
        for poke in [
            "entry 3 65534",
            "entry 3 5",
            "entry 3 3",
            "label 3 3",
            "label 3 5",
        ] {
            poked(AT_REST, &[poke], &refused(17, 3));
        }
        poked(AT_REST, &["entry 3 4"], &refused(17, 3));
        poked(AT_REST, &["label 1 4"], &refused(17, 1));
        poked(AT_REST, &["entry 2 65535"], &refused(17, 1));
        poked(AT_REST, &["entry 1 65535", "label 0 0"], &refused(17, 3));
    }

    #[test]
    fn rings_of_entries_miss_the_gateway() {
        // Links: 0 from 0 to 1, 1 from 1 to 1, 2 from 1 to 2, 3 from 2 to 1.
        let net = "net 0 1 3 4 / 1 1 2 1\ngrades 0 0 0 0\nstart 0\nwork 9\n";
        poked(net, &[], "check ok");
        poked(net, &["entry 1 1"], &refused(18, 1));
        poked(net, &["entry 1 3"], &refused(18, 1));
        // A ring apart, behind a station that is in order.
        let net = "net 0 1 1 2 3 / 1 3 2\ngrades 0 0 0\nstart 0\nwork 9\n";
        let ring = ["entry 2 2", "entry 3 1"];
        poked(net, &[], "check ok");
        poked(net, &ring, &refused(18, 2));
        let with_17 = [&ring[..], &["entry 1 65534"]].concat();
        poked(net, &with_17, &refused(17, 1));
    }

    #[test]
    fn links_bring_nothing_better() {
        poked(AT_REST, &["entry 3 65535"], &refused(19, 2));
        let pokes = ["entry 1 65535", "entry 3 4", "label 3 6"];
        poked(AT_REST, &pokes, &refused(19, 0));
        poked(AT_REST, &["grade 4 3"], "check ok");
        poked(AT_REST, &["grade 4 2"], &refused(19, 4));
        // From a tail without a label nothing comes.
        let net = "net 0 0 2 2 / 0 2\nstart 0\nwork 9\n";
        poked(net, &["label 1 0"], "check ok");
    }

    #[test]
    fn all_of_one_test_comes_before_the_next() {
        // 17 of a higher station before 18 of lower ones, and 18 before 19.
        let net = "net 0 2 3 4 4 / 3 1 2 1\nstart 0\nwork 9\n";
        poked(net, &[], "check ok");
        let ring = ["entry 1 3", "entry 2 2"];
        let pokes = [&ring[..], &["entry 3 1"]].concat();
        poked(net, &pokes, &refused(17, 3));
        let pokes = [&ring[..], &["entry 3 65535"]].concat();
        poked(net, &pokes, &refused(18, 1));
        poked(net, &["entry 3 65535"], &refused(19, 0));
    }

    #[test]
    fn a_check_changes_nothing_and_needs_no_start() {
        check_from(
            ESTATE,
            "poke entry 0 65534\npoke entry 1 0\npoke label 1 4\nenter 2\ncheck 0\nlabels\nentries\nwaiting\n\
             ask 0\nstart 0\nwork 1\nwork 9\npoke entry 2 0\ncheck 0\nlabels\nentries\nwaiting",
            &[
                "poke",
                "poke",
                "poke",
                "enter new",
                "refused 19 place 1 layer check",
                "labels 0 4 0 0",
                "entries 65534 0 65535 65535",
                "waiting 1",
                "refused 8 place 0 layer book",
                "start ok",
                "work 1 2",
                "work 5 0",
                "poke",
                "refused 17 place 2 layer check",
                "labels 0 3 1 4",
                "entries 65534 3 0 2",
                "waiting 0",
            ],
        );
    }
}
