<?php

// For programs without Composer.
foreach (['Errors', 'Frames', 'Session', 'Transaction', 'Store'] as $name) {
    require_once __DIR__ . "/src/$name.php";
}
