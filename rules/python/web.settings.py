"""Examples of the rules of web.yaml that look at settings."""
DEBUG = True  # found: python-django-debug
ALLOWED_HOSTS = ["shop.example", "*"]  # found: python-django-any-host
SESSION_COOKIE_SECURE = False  # found: python-cookie-settings-off
CSRF_COOKIE_SECURE = True  # not found: python-cookie-settings-off
CORS_ALLOW_ALL_ORIGINS = True  # found: python-any-origin
SECRET_KEY = "0123456789"  # found: python-secret-key-in-code
