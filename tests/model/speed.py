"""The speed limit at the train, and the permitted speed (this project's profile). Speeds are in metres per hour,
places in centimetres."""
from collections import namedtuple

import areas
from track import covers, pieces, restriction_starts, speed_for

Target = namedtuple("Target", "place speed")
Train = namedtuple("Train", "length maximum deceleration reaction_ms category")

NO_CATEGORY = 15


class Situation:
    """All that bears on the limit now."""

    def __init__(self, train, stretch, gradients, speeds, restrictions, mode_areas, mark, authority, now, national):
        self.train, self.stretch = train, stretch
        self.gradients, self.speeds, self.restrictions, self.mark = gradients, speeds, restrictions, mark
        self.areas = mode_areas
        self.category = train.category if train else NO_CATEGORY
        self.main = authority.main_speed() if authority else None
        self.end = authority.end(now, national.release) if authority else None
        self.national = national

    def from_where(self, front):
        """Q_FRONT 1 counts from the least front on, Q_FRONT 0 from the least rear on."""
        return self.stretch.min_front if front else self.stretch.min_rear

    def restriction_speeds(self):
        """The restrictions that meet a centimetre up to the greatest front."""
        for restriction in self.restrictions:
            first = max(self.from_where(restriction.front), restriction.start, self.mark)
            if first <= self.stretch.max_front and covers(restriction, first, self.mark):
                yield restriction.speed

    def static_speeds(self):
        """The static speeds of the centimetres from the least rear to the greatest front."""
        starts = self.speeds.starts() | {self.stretch.min_front}
        for place in pieces(starts, self.stretch.min_rear, self.stretch.max_front):
            static = self.speeds.at(place)
            if static and place >= self.from_where(static.front):
                yield speed_for(static, self.category)

    def area_speed(self, area):
        """127 is the national value of its kind."""
        national = self.national.on_sight if area.kind == "on-sight" else self.national.shunting
        return national if area.speed is None else area.speed

    def area_speeds(self):
        """An area counts with Q_FRONT 1."""
        for area in self.areas:
            if areas.is_met(area, self.stretch.min_front, self.stretch.max_front):
                yield self.area_speed(area)

    def maximum(self):
        """Of the train; a missing bound does not limit."""
        return [self.train.maximum] if self.train else []

    def least(self, *bounds):
        """The least of some bounds, the train's maximum and the restrictions."""
        return min([*bounds, *self.maximum(), *self.restriction_speeds()])

    def limit(self):
        """The least of all that limits the train where it stands; a missing bound does not limit."""
        bounds = [*self.maximum(), *self.static_speeds(), *self.restriction_speeds(), *self.area_speeds()]
        if self.end:
            bounds.append(self.main)
            if self.stretch.max_front >= self.end.place and self.end.speed > 0:
                bounds.append(self.end.speed)
        return min(bounds)

    # ---- what lies ahead: above the greatest front

    def places_ahead(self):
        """The centimetres ahead at which a target may ask for another speed than just before."""
        first = self.stretch.max_front + 1
        starts = self.speeds.starts() | restriction_starts(self.restrictions) | {self.mark}
        starts |= {place for area in self.areas for place in (area.start, area.end) if place is not None}
        return pieces(starts, first, max(starts | {first}))

    def targets_at(self, place):
        """A centimetre ahead with a static speed, restriction or area is a target of that speed, one before the end
        without a static speed is one of speed 0."""
        static = self.speeds.at(place)
        if static:
            yield Target(place, speed_for(static, self.category))
        elif self.end and place < self.end.place:
            yield Target(place, 0)
        for restriction in self.restrictions:
            if covers(restriction, place, self.mark):
                yield Target(place, restriction.speed)
        for area in self.areas:
            if areas.covers(area, place):
                yield Target(place, self.area_speed(area))

    def targets(self):
        """Of equal speeds the first centimetre asks for the most."""
        return [target for place in self.places_ahead() for target in self.targets_at(place)]

    def deceleration_at(self, place):
        """In cm/s2, on the gradient there and rounded down; 0 where no gradient is stored."""
        gradient = self.gradients.at(place)
        return 0 if gradient is None else max(0, self.train.deceleration + 981 * gradient // 1000)

    def taken_off(self, first, end):
        """What each centimetre from one up to another, and without it, takes off the square of the speed: 1 cm/s is
        36 m/h."""
        places = pieces(self.gradients.starts(), first, end - 1)
        return sum((after - place) * 2592 * self.deceleration_at(place)
                   for place, after in zip(places, places[1:] + [end]))

    def fits(self, speed, target):
        """The speed is no greater than the target's, or the brakes act before the target and take off enough."""
        if speed <= target.speed:
            return True
        front = self.stretch.max_front
        way = -(-speed * self.train.reaction_ms // 36000)
        return (way < target.place - front
                and speed * speed <= target.speed * target.speed + self.taken_off(front + way, target.place))

    def greatest(self, limit, targets):
        """The greatest speed up to a limit that fits all targets. A speed below one that fits fits too: it is found by
        halving, and then that it fits and the next one does not is looked at."""
        def fits_all(speed):
            return all(self.fits(speed, target) for target in targets)

        least, beyond = 0, limit + 1
        while beyond - least > 1:
            middle = (least + beyond) // 2
            least, beyond = (middle, beyond) if fits_all(middle) else (least, middle)
        assert (least == 0 or fits_all(least)) and (least == limit or not fits_all(least + 1))
        return least

    def permitted(self):
        """The release rule: the greater of the speed for the end, and of the lesser of the release speed and the speed for
        a stop at the supervised location."""
        limit, targets = self.limit(), self.targets()
        if not self.end:
            return self.greatest(limit, targets)
        to_end = self.greatest(limit, targets + [Target(self.end.place, self.end.speed)])
        to_location = self.greatest(limit, targets + [Target(self.end.location, 0)])
        return max(to_end, min(self.end.release, to_location))
