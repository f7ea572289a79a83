"""The movement authority: its end, and the supervised location (SUBSET-026, 3.8; timers and release speeds are this
project's). It is read off the latest packet 12 and all that was seen since: the moment and the fronts after each event, from
the one that accepted it on."""
from collections import namedtuple

from national import speed_of

NEVER_S = 1023
ONBOARD, NATIONAL = 126, 127  # V_RELEASEDP, V_RELEASEOL

Sight = namedtuple("Sight", "moment min_front max_front")
End = namedtuple("End", "place speed location release")


def is_over(time_s, start, now):
    """A timer has run out where now less its start is at least its time; 1023 never does."""
    return time_s != NEVER_S and now - start >= 1000 * time_s


class Authority:
    def __init__(self, fact, sights):
        self.packet, self.place, self.accepted = fact.packet, fact.place, fact.moment
        self.sights = sights
        self.sections, entry = [], self.place  # with the entry of each, the end section being the last
        for section in (*self.packet.sections, self.packet.end_section):
            self.sections.append((entry, section))
            entry += self.cm(section.length)
        self.announced_end = entry

    def cm(self, distance):
        return distance * self.packet.scale_cm

    def main_speed(self):
        """V_MAIN."""
        return speed_of(self.packet.speed)

    def section_ran_out(self, entry, timer, now):
        """Its timer starts at the acceptance; it stops where the least front is at or above its stop place before it ran
        out."""
        time_s, stop = timer
        return is_over(time_s, self.accepted, now) and not any(
            seen.min_front >= entry + self.cm(stop) for seen in self.sights if not is_over(time_s, self.accepted, seen.moment))

    def ran_out_before_end(self, time_s, start, now):
        """A timer that starts where the greatest front is first at or above the end as it was announced, less a distance."""
        started = next((seen.moment for seen in self.sights if seen.max_front >= self.announced_end - self.cm(start)), None)
        return started is not None and is_over(time_s, started, now)

    def taken_back_to(self, now):
        """The entry of the first section along the track that ran out, if one did. When the end timer runs out the end
        section has."""
        for entry, section in self.sections:
            if section.timer and self.section_ran_out(entry, section.timer, now):
                return entry
        if self.packet.end_timer and self.ran_out_before_end(*self.packet.end_timer, now):
            return self.sections[-1][0]
        return None

    def end_speed(self, now):
        """V_LOA, until T_LOA after the acceptance."""
        return 0 if is_over(self.packet.end_time_s, self.accepted, now) else speed_of(self.packet.end_speed)

    def supervised(self, now):
        """The supervised location and its release speed: of the overlap until its timer ran out, else of the danger point,
        else the end itself."""
        overlap = self.packet.overlap
        if overlap and not self.ran_out_before_end(overlap.time_s, overlap.start, now):
            return self.announced_end + self.cm(overlap.distance), overlap.release
        if self.packet.danger_point:
            distance, release = self.packet.danger_point
            return self.announced_end + self.cm(distance), release
        return self.announced_end, ONBOARD

    def end(self, now, national_release):
        """An end that was taken back has no V_LOA, danger point or overlap. While V_LOA is above 0 there is no release
        speed."""
        place = self.taken_back_to(now)
        if place is not None:
            return End(place, 0, place, 0)
        speed = self.end_speed(now)
        location, release = self.supervised(now)
        release_speed = {ONBOARD: 0, NATIONAL: national_release}.get(release, speed_of(release))
        return End(self.announced_end, speed, location, 0 if speed else release_speed)
