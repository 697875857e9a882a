#!/usr/bin/env python3
import no_such_module
