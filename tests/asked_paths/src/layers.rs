use crate::asked::Asked;
use session_watch::Excusing;
use sm_world::Conn;
use world_time::Ticking;

impl<W: Excusing> Excusing for Asked<W> {
    fn excuse(&mut self, conn: Conn, excused: bool) {
        self.world.excuse(conn, excused);
    }
}

impl<W: Ticking> Ticking for Asked<W> {
    fn keep_ticking(&mut self, wanted: bool) {
        self.world.keep_ticking(wanted);
    }
}
