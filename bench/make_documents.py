#!/usr/bin/env python3
"""Writes the documents of the benchmark into the folder that is named: make_documents.py FOLDER [SIZE KIND..]

With a size in bytes it writes documents of these kinds that are about so long each, as many as are 1 MB together.

Each line of a file is one document. Those of a .json file are standard JSON without a fraction or an exponent, and only
the catalog and the indented objects have blanks between their tokens. Those of a .json5 file are extended JSON with keys without
quotes, single quotes, comments, decimals and hexadecimals. Those of a .rejected file have a fault at nine tenths. Those
of a .exponents file are JSON in which each number has an exponent. A .paths file has a path for each document of the
.json file of its name, to a part of it. The numbers come from a fixed seed, so that every run
has the same documents.
"""
import json
import os
import random
import sys

LETTERS = "abcdefghijklmnopqrstuvwxyz"
WORDS = "id name city state count total price user active note tag lat lon year month status type value code title".split()


def text_of(value):
    return json.dumps(value, separators=(",", ":"), ensure_ascii=False)


def string_of(letters, least, most):
    return "".join(random.choice(letters) for _ in range(random.randrange(least, most)))


def record(i):
    """An object of eight members with short strings, integers, an array and an object."""
    keys = random.sample(WORDS, 8)
    return dict(zip(keys, [
        i, random.choice(WORDS) + str(random.randrange(100)), random.randrange(-1000, 100000),
        random.choice([True, False, None]), random.choice(WORDS), random.randrange(2**40),
        [random.randrange(100) for _ in range(3)], {"a": random.randrange(10), "b": random.choice(WORDS)}]))


def integer():
    return random.choice([
        random.randrange(100), random.randrange(100000), random.randrange(-2**31, 2**31), random.randrange(2**63)])


def wide_object(members):
    # The index at the end keeps the keys apart, and the letters before it keep them out of order.
    return {string_of(LETTERS, 6, 7) + str(i): i for i in range(members)}


def documents():
    """Each name with its documents, about 1 MB, and 2 MB for the wide object."""
    yield "objects", [text_of([record(i) for i in range(5600)])]
    yield "long_strings", [text_of([string_of(LETTERS + " é", 40, 400) for _ in range(4600)])]
    yield "escapes", [text_of([string_of(LETTERS + " \n\"\t\\", 20, 100) for _ in range(15000)])]
    yield "integers", [text_of([integer() for _ in range(110000)])]
    # Half of these nest arrays alone, and half nest objects.
    yield "depth_500", ["[" * 500 + "1" + "]" * 500, '{"a":' * 500 + "1" + "}" * 500] * 140
    yield "wide_object", [text_of(wide_object(100000))]
    yield "small", [text_of({"id": i, "name": string_of(LETTERS, 3, 12), "tags": ["a", "b"], "ok": True}) for i in range(18000)]


def decimal():
    digits = random.randrange(1, 6)
    return "%s%d.%0*d" % (random.choice(["", "-", "+"]), random.randrange(10000), digits, random.randrange(10**digits))


def extended_number():
    return random.choice([decimal, decimal, lambda: str(integer()), lambda: hex(random.randrange(2**32))])()


def setting(i):
    """An object as people write them by hand: a comment, keys without quotes, single quotes, decimals, a comma at the end."""
    keys = random.sample(WORDS, 5)
    return "/* %s %d */ { %s: %s, %s: '%s', '%s': [%s,], %s: %s, %s: \"%s\" }" % (
        random.choice(WORDS), i, keys[0], extended_number(), keys[1], string_of(LETTERS + " ", 4, 30), keys[2],
        ", ".join(decimal() for _ in range(3)), keys[3], random.choice(["TRUE", "false", "Null"]), keys[4], string_of(LETTERS, 3, 12))


def extended_documents():
    """The same of extended JSON."""
    yield "extended", ["[ " + ", ".join(setting(i) for i in range(20)) + " ] // the end" for _ in range(400)]


def number_with_exponent():
    """A double of 1 to 17 digits, of a magnitude at which Python's json.dumps writes an exponent."""
    digits = random.choice([1, 3, 6, 16, 17])
    exponent = random.choice([random.randrange(-20, -4), random.randrange(16, 21)])
    number = json.dumps(float("%de%d" % (random.randrange(10**(digits - 1), 10**digits), exponent - digits + 1)))
    return number if "e" in number else number + "e+00"


def documents_with_exponents():
    """Arrays of numbers with exponents, and objects in which each number has one."""
    yield "exponents", ["[%s]" % ",".join(number_with_exponent() for _ in range(75000))]
    yield "objects_with_exponents", ["[%s]" % ",".join(
        '{"id":"%s","value":%s,"error":%s,"unit":"%s"}' % (name(), number_with_exponent(), number_with_exponent(),
                                                           random.choice(WORDS)) for _ in range(12500))]


def documents_of_escaped_letters():
    """About 1 MB of strings of Cyrillic and Japanese letters, as json.dumps writes them: each letter is an escape."""
    letters = "абвгдежзийклмнопрстуфхцчшщыьэюя東京都の駅から歩く    "
    yield "unicode", [json.dumps([string_of(letters, 20, 100) for _ in range(3000)], separators=(",", ":"))]


def documents_of_keys_that_begin_alike():
    """About 1 MB in one object whose keys differ in numbers at their ends, out of order."""
    yield "numbered_keys", [text_of({"user:%06d" % i: i for i in random.sample(range(50000), 50000)})]


def identity():
    return random.randrange(10**17, 10**18)


def name():
    return string_of(LETTERS, 4, 16)


def address():
    return "https://%s.example.com/%s/%s.png" % (string_of(LETTERS, 3, 6), name(), name())


def date():
    return "%s Aug %02d %02d:%02d:%02d +0000 2014" % (
        random.choice("Sun Mon Tue Wed Thu Fri Sat".split()), random.randrange(1, 32), *random.choices(range(24), k=3))


def words(least, most, breaks=(" ",)):
    """Words, some of them not ASCII, with breaks between them: so many letters in all."""
    length, text = random.randrange(least, most), ""
    while len(text) < length:
        text += string_of(random.choice([LETTERS] * 5 + ["éüñжш東京都の駅"]), 2, 12) + random.choice(breaks)
    return text[:length]


def message(least, most):
    """Words with a double quote or a line feed here and there."""
    return words(least, most, [" "] * 18 + ["\n", '" '])


def flags(keys):
    return {key: random.choice([True, False, False]) for key in keys.split()}


def some(most, **members):
    """As many objects as chance has it, each with the members that are made and its place in a text."""
    return [{**{key: make() for key, make in members.items()}, "indices": [i * 20, i * 20 + random.randrange(3, 20)]}
            for i in range(random.randrange(most + 1))]


def links():
    return some(2, url=address, expanded_url=address, display_url=name)


def user():
    """A user of 40 members: names and texts, counts, truths, colours and addresses."""
    number = random.randrange(10**6, 10**10)
    return {
        "id": number, "id_str": str(number), "name": words(4, 20), "screen_name": name(), "location": words(0, 20),
        "description": message(0, 160), "url": random.choice([None, address()]), "created_at": date(),
        "entities": {"url": {"urls": links()}, "description": {"urls": []}},
        **{it + "_count": random.randrange(50000) for it in "followers friends listed favourites statuses".split()},
        "utc_offset": random.choice([None, 32400, -18000]), "time_zone": random.choice([None, "Tokyo", "Irkutsk"]),
        "lang": random.choice(["ja", "en", "fr"]),
        **flags("protected verified geo_enabled contributors_enabled is_translator is_translation_enabled"),
        **{"profile_%s_color" % it: "%06X" % random.randrange(2**24)
           for it in "background link sidebar_border sidebar_fill text".split()},
        **{"profile_%s_url" % it: address()
           for it in "image image_https background_image background_image_https banner".split()},
        **flags("profile_background_tile profile_use_background_image default_profile default_profile_image"),
        **flags("following follow_request_sent notifications")}


def status():
    """A status of 23 members, and of 25 where it has a picture that may offend."""
    number, answered = identity(), random.choice([None, identity()])
    return {
        "metadata": {"result_type": "recent", "iso_language_code": "ja"}, "created_at": date(), "id": number,
        "id_str": str(number), "text": message(60, 141), "truncated": False,
        "source": '<a href="%s" rel="nofollow">%s</a>' % (address(), name()),
        "in_reply_to_status_id": answered, "in_reply_to_status_id_str": answered and str(answered),
        **dict.fromkeys("in_reply_to_user_id in_reply_to_user_id_str in_reply_to_screen_name".split()), "user": user(),
        **dict.fromkeys("geo coordinates place contributors".split()), "retweet_count": random.randrange(1000),
        "favorite_count": random.randrange(1000), "entities": {
            "hashtags": some(2, text=lambda: words(3, 15)), "symbols": [], "urls": links(), "user_mentions": some(
                2, screen_name=name, name=lambda: words(4, 20), id=identity, id_str=lambda: str(identity()))},
        **flags("favorited retweeted"), "lang": random.choice(["ja", "en", "fr"]),
        **random.choice([{}, {"possibly_sensitive": False, "media_url": address()}])}


def answer(statuses):
    """What a social network answers to a search. It escapes each slash, as some writers do."""
    return text_of({"statuses": [status() for _ in range(statuses)], "search_metadata": {
        "completed_in": random.randrange(100), "max_id": identity(), "next_results": address(), "query": "東京",
        "refresh_url": address(), "count": statuses, "since_id": 0}}).replace("/", "\\/")


def numbers(many):
    return [random.randrange(10**8, 4 * 10**8) for _ in range(many)]


def by_number(keys, make):
    """An object whose keys are numbers' texts, as a store has them that finds things by their number."""
    return {str(key): make(key) for key in keys}


def event(number):
    return {"description": None, "id": number, "logo": random.choice([None, "/images/%d.gif" % number]),
            "name": words(10, 40), "subTopicIds": numbers(random.randrange(5)), "subjectCode": None, "subtitle": None,
            "topicIds": numbers(random.randrange(4))}


def performance(events, categories):
    """One evening of an event, with its prices and the areas of its seats."""
    offered = random.sample(categories, random.randrange(1, 5))
    return {
        "eventId": random.choice(events), "id": numbers(1)[0], "logo": None, "name": None,
        "prices": [{"amount": random.randrange(10000, 200000), "audienceSubCategoryId": 337100890, "seatCategoryId": it}
                   for it in offered],
        "seatCategories": [{"areas": [{"areaId": area, "blockIds": []} for area in numbers(random.randrange(1, 9))],
                            "seatCategoryId": it} for it in offered],
        "seatMapImage": None, "start": random.randrange(1372701600000, 1404230400000),
        "venueCode": random.choice(WORDS).upper()}


def catalog(many):
    """A catalogue of events, indented."""
    events, categories, topics = numbers(many), numbers(60), numbers(20)
    return indented({
        "areaNames": by_number(numbers(20), lambda _: words(10, 30)), "blockNames": {},
        "events": by_number(events, event),
        "performances": [performance(events, categories) for _ in range(many)],
        "seatCategoryNames": by_number(categories, lambda _: words(10, 30)),
        "topicNames": by_number(topics, lambda _: words(10, 30)),
        "topicSubTopics": by_number(topics, lambda _: numbers(random.randrange(1, 9))),
        "venueNames": {it.upper(): words(10, 30) for it in WORDS}})


def indented(value):
    """The text that json.dumps indents. As a document is one line, a blank stands for each line feed."""
    return json.dumps(value, indent=2, ensure_ascii=False).replace("\n", " ")


def shaped_documents():
    """Standard documents as services answer with them, 600 KB and 1 MB, 1 MB of short strings, and objects indented."""
    yield "tweets", [answer(100) for _ in range(2)]
    yield "catalog", [catalog(460)]
    yield "short_strings", [text_of([string_of(LETTERS, 2, 13) for _ in range(1000)]) for _ in range(100)]
    yield "indented", [indented([record(i) for i in range(2800)])]


def until(size, part):
    """The texts of parts that are so many bytes together, each made of its index."""
    texts, length = [], 0
    while length < size:
        texts.append(part(len(texts)))
        length += len(texts[-1].encode()) + 1
    return texts


def array(part):
    """What makes an array of a size, of parts that are made of their index."""
    return lambda size: "[%s]" % ",".join(until(size, lambda i: text_of(part(i))))


def wide_object_of(size):
    return "{%s}" % ",".join(until(size, lambda i: '"%s%d":%d' % (string_of(LETTERS, 6, 7), i, i)))


# What makes a document of a size, of the kinds of `documents` and `shaped_documents` that have one.
KINDS = {
    "tweets": lambda size: answer(max(1, size // 3000)),
    "catalog": lambda size: catalog(max(1, (size - 12000) // 2150)),
    "long_strings": array(lambda _: string_of(LETTERS + " é", 40, 400)),
    "short_strings": array(lambda _: string_of(LETTERS, 2, 13)),
    "escapes": array(lambda _: string_of(LETTERS + " \n\"\t\\", 20, 100)),
    "integers": array(lambda _: integer()),
    "objects": array(record),
    "wide_object": wide_object_of,
}


def rejected(text):
    """The text with a fault at nine tenths: a semicolon in the place of a comma between members or elements."""
    fault = text.index(',"', len(text) * 9 // 10)
    return text[:fault] + ";" + text[fault + 1:]


def path_to_part(text, levels):
    """The path (RFC 6901) of a part so many levels down: each time the middle member, or the fourth item."""
    path, value = "", json.loads(text)
    for _ in range(levels):
        if isinstance(value, dict) and value:
            key = list(value)[(len(value) - 1) // 2]
        elif isinstance(value, list) and value:
            key = min(3, len(value) - 1)
        else:
            break
        path, value = path + "/" + str(key).replace("~", "~0").replace("/", "~1"), value[key]
    return path


# How many levels down the part is that is taken out of a document; of the other kinds one.
LEVELS = {"tweets": 4, "catalog": 4}


def write_standard(folder, name, texts):
    write(os.path.join(folder, name + ".json"), texts)
    write(os.path.join(folder, name + ".paths"), [path_to_part(text, LEVELS.get(name, 1)) for text in texts])


def write_sized(folder, size, kinds):
    for name in kinds:
        write_standard(folder, name, until(1000000, lambda _: KINDS[name](size)))


def write(path, texts):
    with open(path, "w", encoding="utf-8") as file:
        file.write("".join(text + "\n" for text in texts))


def main():
    folder = sys.argv[1]
    os.makedirs(folder, exist_ok=True)
    sys.setrecursionlimit(5000)
    random.seed(7)
    if len(sys.argv) > 2:
        write_sized(folder, int(sys.argv[2]), sys.argv[3:])
        return
    for name, texts in documents():
        write_standard(folder, name, texts)
        if name == "objects":
            write(os.path.join(folder, "faulty_objects.rejected"), [rejected(text) for text in texts])
    for name, texts in extended_documents():
        write(os.path.join(folder, name + ".json5"), texts)
    for name, texts in shaped_documents():
        write_standard(folder, name, texts)
    for name, texts in documents_with_exponents():
        write(os.path.join(folder, name + ".exponents"), texts)
    for name, texts in documents_of_escaped_letters():
        write_standard(folder, name, texts)
    for name, texts in documents_of_keys_that_begin_alike():
        write_standard(folder, name, texts)


main()
