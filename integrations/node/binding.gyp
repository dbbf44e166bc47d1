{
  "targets": [{
    "target_name": "vizhoniku",
    "sources": ["vizhoniku.c"],
    "cflags": [
      "-std=c11", "-Wall", "-Wextra", "-Werror", "-fvisibility=hidden",
      "<!@(pkg-config --cflags vizhoniku)"
    ],
    "libraries": ["<!@(pkg-config --libs vizhoniku)"]
  }]
}
